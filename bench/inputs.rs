//! What is valued: contracts in bytes, with the lengths of the slices to lend.

/// Entries lent beyond those needed; no program may touch them.
pub const SPARE: usize = 3;

pub const STATIC: u64 = 0;
pub const MIXED: u64 = 1;
pub const DYNAMIC: u64 = 2;

/// The fields of a contract record, in its order; the spare bytes are zero.
#[derive(Clone, Copy)]
pub struct Terms {
    pub premium: u16,
    pub level: u16,
    pub top: u16,
    pub dates: u16,
    pub fee: u16,
    pub penalty: u16,
    pub discount: u32,
    pub step: u16,
}

/// Factor and weight.
pub type Return = (u16, u16);

/// What a call is given.
#[derive(Clone)]
pub struct Input {
    pub record: Vec<u8>,
    pub list: Vec<u8>,
    pub rates: Vec<u8>,
    pub behaviour: u64,
    pub work_len: usize,
    pub table_len: usize,
    /// Lent where the call takes a map.
    pub map_len: usize,
    /// Given where the call searches for a fee. At first the premium: what the contract costs.
    pub wanted: u64,
}

impl Input {
    /// With another fee in the record.
    pub fn at_fee(&self, fee: u16) -> Input {
        let mut other = self.clone();
        other.record[8..10].copy_from_slice(&fee.to_le_bytes());
        other
    }
}

impl Terms {
    /// With a death rate for each period.
    pub fn input(&self, returns: &[Return], rates: &[u16], behaviour: u64) -> Input {
        let words = [
            self.premium,
            self.level,
            self.top,
            self.dates,
            self.fee,
            self.penalty,
        ];
        let mut record: Vec<u8> = words.iter().flat_map(|w| w.to_le_bytes()).collect();
        record.extend(self.discount.to_le_bytes());
        record.extend(self.step.to_le_bytes());
        record.extend([0, 0]);
        let mut list = Vec::new();
        for (factor, weight) in returns {
            list.extend(factor.to_le_bytes());
            list.extend(weight.to_le_bytes());
        }
        let layer = (usize::from(self.top) + 1) * (usize::from(self.premium) + 1);
        let entries = (usize::from(self.dates) - 1) * layer;
        Input {
            record,
            list,
            rates: rates.iter().flat_map(|rate| rate.to_le_bytes()).collect(),
            behaviour,
            work_len: 2 * layer + SPARE,
            table_len: entries + SPARE,
            map_len: entries.div_ceil(64) + SPARE,
            wanted: 10_000 * u64::from(self.premium),
        }
    }
}

/// The size of a contract to time; the other terms are the same for all.
#[derive(Clone, Copy)]
pub struct Size {
    pub top: u16,
    pub premium: u16,
    pub level: u16,
    pub dates: u16,
    pub returns: u16,
    /// The highest factor.
    pub highest: u16,
    pub penalty: u16,
    pub step: u16,
    /// The death rates of the first period and of the last.
    pub deaths: (u16, u16),
}

/// With zero death rates.
pub const fn size(top: u16, premium: u16, level: u16, dates: u16, returns: u16) -> Size {
    Size {
        top,
        premium,
        level,
        dates,
        returns,
        highest: 16_000,
        penalty: 500,
        step: 0,
        deaths: (0, 0),
    }
}

impl Size {
    pub fn input(&self, behaviour: u64) -> Input {
        let terms = Terms {
            premium: self.premium,
            level: self.level,
            top: self.top,
            dates: self.dates,
            fee: 100,
            penalty: self.penalty,
            discount: 970_000,
            step: self.step,
        };
        let returns = spread(self.returns.into(), self.highest);
        terms.input(&returns, &self.rates(), behaviour)
    }

    /// Evenly risen from the first to the last.
    fn rates(&self) -> Vec<u16> {
        let (first, last) = self.deaths;
        let periods = u32::from(self.dates);
        let risen = |i: u32| u32::from(last - first) * i / (periods - 1).max(1);
        (0..periods).map(|i| first + risen(i) as u16).collect()
    }

    /// How many values the plain program looks up: one for each return of each amount of
    /// each state of each decision date.
    pub fn plain_steps(&self, behaviour: u64) -> u64 {
        let mut amounts = 0;
        for account in 0..=self.top {
            for guarantee in 0..=self.premium {
                amounts += match behaviour {
                    STATIC => 1,
                    MIXED => 2,
                    _ => u64::from(account.max(guarantee.min(self.level))) + 1,
                };
            }
        }
        amounts * u64::from(self.dates - 1) * u64::from(self.returns)
    }
}

/// Returns from 0.6 to the highest, evenly spread by ratio; the weights fall off towards both
/// ends as a parabola. Up to 1.6 a fall and a rise of the same ratio are alike; up to 3.0 most
/// returns rise, and more of them lift a balance above top.
fn spread(count: usize, highest: u16) -> Vec<Return> {
    let heights: Vec<usize> = (0..count).map(|k| (k + 1) * (count - k)).collect();
    let total: usize = heights.iter().sum();
    let mut below = 0;
    let mut returns = Vec::new();
    for (k, height) in heights.iter().enumerate() {
        let ratio = (f64::from(highest) / 6_000.0).powf(k as f64 / (count - 1) as f64);
        // Shares are cut from the running total, so they add to 10,000.
        let weight = 10_000 * (below + height) / total - 10_000 * below / total;
        below += height;
        returns.push(((6_000.0 * ratio).round() as u16, weight as u16));
    }
    returns
}
