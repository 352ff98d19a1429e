//! Where samples and values lie in the box of a plot.

/// Room for at least so many samples across, a year of one a month.
const LEAST_SLOTS: usize = 12;
/// Beyond so many samples only the lowest and highest of each group are drawn.
const MOST_DRAWN: usize = 200;
/// About how many numbers stand along an axis.
const TICKS: usize = 8;

/// A box whose y grows downward; each sample has a slot of its own width.
#[derive(Clone, Copy, Debug)]
pub struct Plot {
    pub left: f64,
    pub top: f64,
    pub width: f64,
    pub height: f64,
    slots: usize,
    lowest: i32,
    highest: i32,
}

impl Plot {
    /// A plot of these values, with 0 and the limit inside and some room
    /// above and below.
    pub fn new(corner: (f64, f64), size: (f64, f64), values: &[i32], limit: i32) -> Plot {
        let lowest = values.iter().copied().fold(0, i32::min);
        let top = values.iter().copied().fold(limit, i32::max);
        Plot {
            left: corner.0,
            top: corner.1,
            width: size.0,
            height: size.1,
            slots: values.len().max(LEAST_SLOTS),
            lowest: lowest - (top - lowest) / 16,
            highest: top + (top - lowest) / 8,
        }
    }

    /// The middle of a sample's slot.
    pub fn x(&self, sample: usize) -> f64 {
        self.left + (sample as f64 - 0.5) * self.slot()
    }

    pub fn slot(&self) -> f64 {
        self.width / self.slots as f64
    }

    pub fn y(&self, value: i32) -> f64 {
        let part = f64::from(self.highest - value) / f64::from(self.highest - self.lowest);
        self.top + part * self.height
    }

    pub fn bottom(&self) -> f64 {
        self.top + self.height
    }

    pub fn right(&self) -> f64 {
        self.left + self.width
    }

    /// Samples whose numbers stand below the box, fewer where they have three digits.
    pub fn sample_ticks(&self) -> Vec<usize> {
        sample_ticks(self.slots, if self.slots < 100 { 12 } else { 6 })
    }

    /// Values whose numbers stand beside the box.
    pub fn value_ticks(&self) -> Vec<i32> {
        let step = step((self.highest - self.lowest) as usize, TICKS) as i32;
        (self.lowest / step..=self.highest / step).map(|times| times * step).collect()
    }
}

/// 1 and the multiples of a step, at most so many.
pub fn sample_ticks(samples: usize, most: usize) -> Vec<usize> {
    let step = step(samples, most);
    let multiples = (1..=samples / step).map(|times| times * step);
    std::iter::once(1).chain(multiples.filter(|&sample| sample > 1)).collect()
}

/// The least of 1, 2, 5, 10, 20 and so on that goes into the span at most so many times.
fn step(span: usize, most: usize) -> usize {
    let steps = (0..).flat_map(|power| [1, 2, 5].map(|digit| digit * 10usize.pow(power)));
    steps.into_iter().find(|step| span <= most * step).expect("some step is large enough")
}

/// How many samples of a long stretch are drawn as their lowest and highest.
pub fn group(samples: usize) -> Option<usize> {
    (samples > MOST_DRAWN).then_some(2 * samples.div_ceil(MOST_DRAWN))
}

/// The samples to draw from first to last: all of them, or of a long stretch the lowest and the
/// highest of each group, so that no peak is lost. Both ends always stay.
pub fn drawn(values: &[i32], first: usize, last: usize) -> Vec<usize> {
    let Some(group) = group(values.len()) else { return (first..=last).collect() };
    let mut kept = vec![first, last];
    for start in (first..=last).step_by(group) {
        let members = start..=(start + group - 1).min(last);
        // Of equal ones the first.
        kept.extend(members.clone().min_by_key(|sample| values[sample - 1]));
        kept.extend(members.rev().max_by_key(|sample| values[sample - 1]));
    }
    kept.sort_unstable();
    kept.dedup();
    kept
}

#[cfg(test)]
mod tests {
    use super::*;

    fn plot(values: &[i32], limit: i32) -> Plot {
        Plot::new((50.0, 20.0), (200.0, 100.0), values, limit)
    }

    #[test]
    fn samples_and_values_lie_in_the_box() {
        let long: Vec<i32> = (0..999).map(|sample| sample % 53).collect();
        let cases: [(&[i32], i32); 5] = [
            (&[-20], 52),
            (&[20, 40, 52, 72], 52),
            (&[-250, 9500, 19_000], 10_000),
            (&[0; 13], 43),
            (&long, 52),
        ];
        for (values, limit) in cases {
            let plot = plot(values, limit);
            for (sample, &value) in (1..).zip(values) {
                assert!(plot.left < plot.x(sample) && plot.x(sample) < plot.right());
                assert!(plot.top <= plot.y(value) && plot.y(value) <= plot.bottom());
            }
            assert!(plot.top < plot.y(limit) && plot.y(limit) < plot.y(0));
            assert!(plot.y(0) <= plot.bottom());
            for tick in plot.value_ticks() {
                assert!(plot.top <= plot.y(tick) && plot.y(tick) <= plot.bottom() + 1e-9);
            }
        }
    }

    #[test]
    fn higher_values_lie_higher() {
        let plot = plot(&[52, 53], 52);
        assert!(plot.y(53) < plot.y(52));
        assert!(plot.x(1) < plot.x(2));
    }

    #[test]
    fn a_long_stretch_keeps_its_ends_and_peaks() {
        let mut values = vec![1; 999];
        (values[499], values[500]) = (51, -20);
        let kept = drawn(&values, 3, 998);
        assert!(kept.len() <= MOST_DRAWN + 4);
        assert_eq!((kept.first(), kept.last()), (Some(&3), Some(&998)));
        assert!(kept.contains(&500) && kept.contains(&501));
        assert_eq!(drawn(&values[..100], 5, 7), [5, 6, 7]);
    }

    #[test]
    fn ticks_are_few() {
        assert_eq!(sample_ticks(12, 12), (1..=12).collect::<Vec<usize>>());
        assert_eq!(sample_ticks(999, 6), [1, 200, 400, 600, 800]);
        assert_eq!(plot(&[-20, 30], 52).value_ticks(), [-20, 0, 20, 40, 60]);
    }
}
