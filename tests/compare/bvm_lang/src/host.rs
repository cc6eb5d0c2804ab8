//! Stand-in for host.rs: the registry and its lookup, with places in the host list for closures.

use alloc::collections::BTreeMap;
use alloc::string::{String, ToString};

/// A registered host function.
#[derive(Clone, Debug)]
pub(crate) enum HostFn {
    /// A function the embedder registered; here its place in the host list.
    User(u32),
    /// The built-in scheduler; program.rs matches it as a unit, so `Host::place` gives its place.
    Scheduler,
}

/// A registry of host functions, keyed by import module and name.
#[derive(Debug, Default)]
pub struct Host {
    funcs: BTreeMap<(String, String), HostFn>,
    places: BTreeMap<(String, String), u32>,
}

impl Host {
    #[must_use]
    pub fn new() -> Host {
        Host::default()
    }

    /// Registers the next entry of a host list; false when the pair is there already.
    pub fn register(&mut self, module: &str, name: &str, scheduler: bool) -> bool {
        let place = u32::try_from(self.places.len()).unwrap_or(u32::MAX);
        let pair = (module.to_string(), name.to_string());
        let func = if scheduler {
            HostFn::Scheduler
        } else {
            HostFn::User(place)
        };
        self.places.insert(pair.clone(), place).is_none() && self.funcs.insert(pair, func).is_none()
    }

    pub(crate) fn lookup(&self, module: &str, name: &str) -> Option<&HostFn> {
        // As in host.rs: the map cannot be queried by (&str, &str) without allocating.
        self.funcs.get(&(module.to_string(), name.to_string()))
    }

    /// The place in the host list of a registered pair, from 0.
    pub(crate) fn place(&self, module: &str, name: &str) -> Option<u32> {
        self.places
            .get(&(module.to_string(), name.to_string()))
            .copied()
    }
}
