// Port numbers, IDs and units: three types, so that none stands for another; and what a packet is sent to.

// The number of a port in its picture; 255 is no port, or the root.
#[derive(Clone, Copy)]
pub struct PortNo(pub u8);

// A Routing ID: bus, device and Function.
#[derive(Clone, Copy)]
pub struct Rid(pub u16);

// Eight IDs that differ in their Function alone: an ID divided by 8.
#[derive(Clone, Copy)]
pub struct Unit(pub u16);

// What a packet is sent to.
#[derive(Clone, Copy)]
pub enum Target {
    Id(Rid),
    Addr(u64),
}

// The two spaces of targets.
#[derive(Clone, Copy)]
pub enum Space {
    Ids,
    Addresses,
}

impl Rid {
    pub const BUS_BITS: u16 = 8;

    pub const DEVICE_BITS: u16 = 5;

    pub const FUNCTION_BITS: u16 = 3;

    // Bits 15:8.
    pub fn bus(self) -> u8 {
        ((self.0 >> (Rid::DEVICE_BITS + Rid::FUNCTION_BITS)) % (1 << Rid::BUS_BITS)) as u8
    }

    // Bits 7:3.
    pub fn device(self) -> u8 {
        ((self.0 >> Rid::FUNCTION_BITS) % (1 << Rid::DEVICE_BITS)) as u8
    }

    // Bits 2:0.
    pub fn function(self) -> u8 {
        (self.0 % (1 << Rid::FUNCTION_BITS)) as u8
    }

    // Bits 15:3.
    pub fn unit(self) -> Unit {
        Unit(self.0 >> Rid::FUNCTION_BITS)
    }
}
