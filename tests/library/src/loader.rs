//! What is put against the reference.

/// The calls, by their numbers.
pub trait Loader: Sync {
    /// The six numbers of a sheet under a host list.
    fn load(&self, sheet: &[u8], hosts: &[u8], table: &mut [u32], work: &mut [u32]) -> [u32; 6];

    /// 1 where `t` is `a` or descends from it, 0 where not, 25 where the words are no linked table.
    fn descends(&self, table: &[u32], t: u32, a: u32) -> u32;

    /// 0 and how many types descend from `a`, or 25 and 0 where the words are no linked table.
    fn family_size(&self, table: &[u32], a: u32) -> [u32; 2];

    /// 0 and how many types are on the chain of `t`, or 25 and 0 where the words are no linked table.
    fn chain_length(&self, table: &[u32], t: u32) -> [u32; 2];

    /// 0 and the nearest family of `t` and `u`, 1 and 0 where there is none, or 25 and 0 where the words are no linked table.
    fn nearest(&self, table: &[u32], t: u32, u: u32) -> [u32; 2];

    /// 0 and how many structs the sheet declares, or 1 and 0 where its layout is broken.
    fn count_structs(&self, sheet: &[u8]) -> [u32; 2];
}

/// The library of this repository.
pub struct Library;

impl Loader for Library {
    fn load(&self, sheet: &[u8], hosts: &[u8], table: &mut [u32], work: &mut [u32]) -> [u32; 6] {
        paqlluri::raw::load(sheet, hosts, table, work)
    }

    fn descends(&self, table: &[u32], t: u32, a: u32) -> u32 {
        paqlluri::raw::descends(table, t, a)
    }

    fn family_size(&self, table: &[u32], a: u32) -> [u32; 2] {
        paqlluri::raw::family_size(table, a)
    }

    fn chain_length(&self, table: &[u32], t: u32) -> [u32; 2] {
        paqlluri::raw::chain_length(table, t)
    }

    fn nearest(&self, table: &[u32], t: u32, u: u32) -> [u32; 2] {
        paqlluri::raw::nearest(table, t, u)
    }

    fn count_structs(&self, sheet: &[u8]) -> [u32; 2] {
        paqlluri::raw::count_structs(sheet)
    }
}
