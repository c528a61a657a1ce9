//! A stand-in for the folder `vt` of the original: as much of a value as `LayerOffset` refers to, so that all of it can be
//! compiled. Its functions on values are never called.

#[derive(Clone)]
pub enum Value {
    TimeCode(TimeCode),
    TimeCodeVec(Vec<TimeCode>),
    TimeSamples(TimeSampleMap),
    Other,
}

impl Value {
    pub fn try_transform(&self, transform: &mut impl FnMut(&Value) -> Option<Value>) -> Option<Value> {
        transform(self)
    }
}

#[derive(Clone, Copy)]
pub struct TimeCode(pub f64);

impl TimeCode {
    pub fn value(self) -> f64 {
        self.0
    }
}

pub type TimeSampleMap = Vec<(f64, Value)>;
