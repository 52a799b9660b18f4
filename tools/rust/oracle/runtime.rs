//! Stand-in for the crate `purple_garden_runtime`: only what diagnostic.rs names; the oracle never calls it.

pub struct Anomaly;

impl Anomaly {
    pub fn as_str(&self) -> &'static str {
        "anomaly"
    }

    pub fn pc(&self) -> usize {
        0
    }
}

pub struct DebugInfo;

impl DebugInfo {
    pub fn span_at(&self, _pc: usize) -> u32 {
        0
    }
}
