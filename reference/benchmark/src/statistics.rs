//! Figures of many rounds in few.

/// How the figures of the rounds are spread.
pub struct Spread {
    /// The smallest figure.
    pub least: f64,
    /// A quarter of the figures are smaller.
    pub lower: f64,
    /// Half of the figures are smaller.
    pub median: f64,
    /// A quarter of the figures are larger.
    pub upper: f64,
    /// The largest figure.
    pub most: f64,
}

impl Spread {
    /// The spread of some figures, at least one.
    pub fn of(mut figures: Vec<f64>) -> Spread {
        figures.sort_by(f64::total_cmp);
        let at = |quarter: usize| figures[(figures.len() - 1) * quarter / 4];
        Spread { least: at(0), lower: at(1), median: at(2), upper: at(3), most: at(4) }
    }
}

/// The figures of `a` over those of `b`, round by round.
pub fn ratios(a: &[f64], b: &[f64]) -> Vec<f64> {
    a.iter().zip(b).map(|(a, b)| a / b).collect()
}
