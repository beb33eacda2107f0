//! The engines that there are to play on.

use crate::centre::Reference;
use crate::compare::Engine;

/// The independent implementation, and the proved library where it is linked.
pub fn engines() -> Vec<&'static (dyn Engine + Sync)> {
    const REFERENCE: Reference = Reference::sound();
    let engines: &[&'static (dyn Engine + Sync)] = &[
        &REFERENCE,
        #[cfg(feature = "proved")]
        &crate::proved::Proved,
    ];
    engines.to_vec()
}
