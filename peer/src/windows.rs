//! Request Three: misidentifications in consecutive check samples, 439.20(h)(6).

/// Any so many consecutive samples may have at most so many misidentifications. Where fewer samples
/// stand, they form a window as they are.
pub struct Window {
    samples: usize,
    most: u32,
}

pub const RESIDUE: [Window; 2] = [Window { samples: 2, most: 1 }, Window { samples: 8, most: 2 }];

impl Window {
    /// Whether some consecutive samples have more: every first one is tried with every last one.
    fn broken(&self, counts: &[u8]) -> bool {
        let sum = |own: &[u8]| own.iter().map(|&count| u32::from(count)).sum::<u32>();
        (1..=self.samples).any(|length| counts.windows(length).any(|own| sum(own) > self.most))
    }
}

/// Whether samples, given by their counts since the unit's start, break one of these windows.
pub fn any_broken(windows: &[Window], counts: &[u8]) -> bool {
    windows.iter().any(|window| window.broken(counts))
}
