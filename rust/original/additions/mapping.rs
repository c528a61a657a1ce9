// Appended to mapping.rs of the original, where its private fields and functions are accessible.
impl MapFunction {
    /// A map with exactly these pairs and this mark: no pair is sorted, dropped or turned into the mark.
    pub fn with_exactly(pairs: Vec<(Path, Path)>, has_root_identity: bool) -> Self {
        Self {
            path_map: PathMap::from_vec(pairs),
            has_root_identity,
            time_offset: sdf::LayerOffset::IDENTITY,
        }
    }

    /// `rebase_target` under a public name.
    pub fn rebased_target(&self, from: &Path, to: &Path) -> Self {
        self.rebase_target(from, to)
    }

    /// `path_is_identity` under a public name.
    pub fn leaves_every_path(&self) -> bool {
        self.path_is_identity()
    }

    /// `deepen_to` under a public name.
    pub fn deepened_to(&self, node_path: &Path) -> Self {
        self.deepen_to(node_path)
    }
}
