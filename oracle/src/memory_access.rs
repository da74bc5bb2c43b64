
// ==== Here the original ends. What follows is the oracle's: access to private fields of the above. ====

#[allow(dead_code)]
pub mod access {
    use super::*;

    /// An entry of the table in plain numbers.
    #[derive(Clone, Copy, Debug, PartialEq, Eq)]
    pub struct Entry {
        pub start: u64,
        pub end: u64,
        pub node: u32,
        pub usage: u8,
    }

    /// The number that an entry of a private pool has in its `usage`.
    pub const POOL: u8 = 6;

    fn usage_number(usage: AddressUsage) -> u8 {
        match usage {
            AddressUsage::Free => 0,
            AddressUsage::Used => 1,
            AddressUsage::Reserved(ReservedMemoryType::Vtl2Config) => 2,
            AddressUsage::Reserved(ReservedMemoryType::Vtl2Reserved) => 3,
            AddressUsage::Reserved(ReservedMemoryType::SidecarImage) => 4,
            AddressUsage::Reserved(ReservedMemoryType::SidecarNode) => 5,
            AddressUsage::Reserved(ReservedMemoryType::Vtl2GpaPool) => POOL,
            AddressUsage::Reserved(ReservedMemoryType::TdxPageTables) => 7,
            AddressUsage::Reserved(ReservedMemoryType::BootshimLogBuffer) => 8,
            AddressUsage::Reserved(ReservedMemoryType::PersistedStateHeader) => 9,
            AddressUsage::Reserved(ReservedMemoryType::PersistedStatePayload) => 10,
        }
    }

    /// The entries of the table, in its order.
    pub fn entries(table: &AddressSpaceManager) -> impl Iterator<Item = Entry> + use<'_> {
        table.address_space.iter().map(|entry| Entry {
            start: entry.range.start(),
            end: entry.range.end(),
            node: entry.vnode,
            usage: usage_number(entry.usage),
        })
    }

    /// The builder's field that no step of its own sets.
    pub fn with_page_tables<'a, I: Iterator<Item = MemoryRange>>(
        mut builder: AddressSpaceManagerBuilder<'a, I>,
        page_tables: MemoryRange,
    ) -> AddressSpaceManagerBuilder<'a, I> {
        builder.page_tables = Some(page_tables);
        builder
    }

    impl Clone for AddressRange {
        fn clone(&self) -> Self {
            AddressRange { ..*self }
        }
    }

    /// A table is saved by cloning it, and restored by assigning the clone.
    impl Clone for AddressSpaceManager {
        fn clone(&self) -> Self {
            AddressSpaceManager {
                address_space: self.address_space.clone(),
                vtl2_pool: self.vtl2_pool,
            }
        }
    }
}
