//! Stands for the crate half. The union's ten kinds have no half float: the type only has to exist.

#[allow(non_camel_case_types)]
#[derive(Clone, Copy, Debug, Default, PartialEq, PartialOrd)]
pub struct f16(pub u16);
