//! Contracts as bytes, for the checks and the script: terms, P and Q of document 01, returns,
//! death rates.

/// A contract record, each field in its own width, so that bad ones can be written.
#[derive(Clone, Copy, Debug)]
pub struct Terms {
    pub premium: u16,
    pub level: u16,
    pub top: u16,
    pub dates: u16,
    pub fee: u16,
    pub penalty: u16,
    pub discount: u32,
    pub step: u16,
    pub spare: u16,
}

pub const P: Terms = Terms {
    premium: 10,
    level: 5,
    top: 20,
    dates: 2,
    fee: 0,
    penalty: 1_000,
    discount: 1_000_000,
    step: 0,
    spare: 0,
};

pub const Q: Terms = Terms {
    fee: 2_000,
    penalty: 0,
    ..P
};

/// A return: factor and weight.
pub type Return = (u16, u16);

pub const P_RETURNS: [Return; 2] = [(5_000, 5_000), (15_000, 5_000)];

impl Terms {
    pub fn record(self) -> Vec<u8> {
        let fields = [
            self.premium,
            self.level,
            self.top,
            self.dates,
            self.fee,
            self.penalty,
        ];
        let mut bytes: Vec<u8> = fields.iter().flat_map(|x| x.to_le_bytes()).collect();
        bytes.extend(self.discount.to_le_bytes());
        bytes.extend(self.step.to_le_bytes());
        bytes.extend(self.spare.to_le_bytes());
        bytes
    }

    /// A zero rate for each period.
    pub fn zero_rates(self) -> Vec<u16> {
        vec![0; self.dates.into()]
    }

    pub fn layer(self) -> usize {
        (usize::from(self.top) + 1) * (usize::from(self.premium) + 1)
    }
}

pub fn list(returns: &[Return]) -> Vec<u8> {
    let fields = returns.iter().flat_map(|(f, w)| [*f, *w]);
    fields.flat_map(u16::to_le_bytes).collect()
}

pub fn rate_list(rates: &[u16]) -> Vec<u8> {
    rates.iter().copied().flat_map(u16::to_le_bytes).collect()
}
