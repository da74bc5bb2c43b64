//! Stands in for `loader_defs`: the ten types of memory that the original names.

pub mod shim {
    #[derive(Clone, Copy, Debug, PartialEq, Eq)]
    pub struct MemoryVtlType(pub u32);

    impl MemoryVtlType {
        pub const VTL2_RAM: Self = Self(0);
        pub const VTL2_CONFIG: Self = Self(1);
        pub const VTL2_SIDECAR_IMAGE: Self = Self(2);
        pub const VTL2_SIDECAR_NODE: Self = Self(3);
        pub const VTL2_RESERVED: Self = Self(4);
        pub const VTL2_GPA_POOL: Self = Self(5);
        pub const VTL2_TDX_PAGE_TABLES: Self = Self(6);
        pub const VTL2_BOOTSHIM_LOG_BUFFER: Self = Self(7);
        pub const VTL2_PERSISTED_STATE_HEADER: Self = Self(8);
        pub const VTL2_PERSISTED_STATE_PROTOBUF: Self = Self(9);
    }
}
