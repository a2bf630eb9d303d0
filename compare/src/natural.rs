// Natural numbers of any size: only what multiplied-out comparisons need.
use std::cmp::Ordering;

/// Limbs of 64 bits, lowest first, without zeros at the top.
#[derive(Clone, Debug, PartialEq, Eq)]
pub struct Natural {
    limbs: Vec<u64>,
}

impl Natural {
    pub fn zero() -> Natural {
        Natural { limbs: Vec::new() }
    }

    pub fn from(x: u64) -> Natural {
        let mut out = Natural { limbs: vec![x] };
        out.trim();
        out
    }

    fn trim(&mut self) {
        while self.limbs.last() == Some(&0) {
            self.limbs.pop();
        }
    }

    /// Adds other × factor.
    pub fn add_times(&mut self, other: &Natural, factor: u64) {
        let mut carry: u64 = 0;
        let mut place = 0;
        while place < other.limbs.len() || carry > 0 {
            if place == self.limbs.len() {
                self.limbs.push(0);
            }
            let limb = other.limbs.get(place).copied().unwrap_or(0);
            let sum = self.limbs[place] as u128 + limb as u128 * factor as u128 + carry as u128;
            self.limbs[place] = sum as u64;
            carry = (sum >> 64) as u64;
            place += 1;
        }
        self.trim();
    }

    pub fn times(&self, factor: u64) -> Natural {
        let mut out = Natural::zero();
        out.add_times(self, factor);
        out
    }

    pub fn product(&self, other: &Natural) -> Natural {
        let mut out = Natural::zero();
        for limb in other.limbs.iter().rev() {
            out.limbs.insert(0, 0);
            out.add_times(self, *limb);
        }
        out
    }

    pub fn plus(&self, other: &Natural) -> Natural {
        let mut out = self.clone();
        out.add_times(other, 1);
        out
    }

    /// self − other, or 0 where other is greater.
    pub fn less(&self, other: &Natural) -> Natural {
        if *self <= *other {
            return Natural::zero();
        }
        let mut out = self.clone();
        let mut borrow = false;
        for place in 0..out.limbs.len() {
            let limb = other.limbs.get(place).copied().unwrap_or(0);
            let (first, under) = out.limbs[place].overflowing_sub(limb);
            let (second, again) = first.overflowing_sub(borrow as u64);
            out.limbs[place] = second;
            borrow = under || again;
        }
        out.trim();
        out
    }

    /// |self − other|.
    pub fn distance(&self, other: &Natural) -> Natural {
        if *self < *other {
            other.less(self)
        } else {
            self.less(other)
        }
    }
}

impl PartialOrd for Natural {
    fn partial_cmp(&self, other: &Natural) -> Option<Ordering> {
        Some(self.cmp(other))
    }
}

impl Ord for Natural {
    fn cmp(&self, other: &Natural) -> Ordering {
        let lengths = self.limbs.len().cmp(&other.limbs.len());
        lengths.then_with(|| self.limbs.iter().rev().cmp(other.limbs.iter().rev()))
    }
}

/// The operations against 128-bit numbers, and carries and borrows across limbs.
pub fn check() {
    let (wide, limbs) = (u64::MAX as u128 * 5, Natural { limbs: vec![u64::MAX - 4, 4] });
    assert_eq!(Natural::from(u64::MAX).times(5), limbs);
    for (a, k) in [(0u64, 7u64), (1, 0), (u64::MAX, u64::MAX - 7), (1 << 63, 2), (12_345_678_901, 600_000_000_000_000_000)] {
        let sum = wide + a as u128 * k as u128;
        let mut made = limbs.clone();
        made.add_times(&Natural::from(a), k);
        assert_eq!(made.limbs, vec![sum as u64, (sum >> 64) as u64]);
        assert_eq!(made.less(&limbs), Natural::from(a).times(k));
        assert_eq!(limbs.distance(&made), made.less(&limbs));
        assert_eq!(limbs.less(&made), Natural::zero());
        assert_eq!(made.cmp(&limbs), sum.cmp(&wide));
    }
    let power = Natural { limbs: vec![0, 0, 0, 1] };
    assert_eq!(power.less(&Natural::from(1)).limbs, vec![u64::MAX; 3]);
    assert_eq!(power.less(&Natural::from(1)).plus(&Natural::from(1)), power);
    assert_eq!(limbs.product(&Natural::from(u64::MAX)), limbs.times(u64::MAX));
    assert_eq!(power.product(&limbs).limbs, vec![0, 0, 0, u64::MAX - 4, 4]);
    assert_eq!(limbs.product(&limbs), limbs.times(u64::MAX).times(5));
}
