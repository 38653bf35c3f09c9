//! Stub: of the passes over reactive functions only the published one stands here.

pub mod promote_used_temporaries;
