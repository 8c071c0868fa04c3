//! Thresholds: only a comparison that is true passes.

use crate::decibels::{mean_error, Decibels};
use crate::format::{COMBINED, PLANES};
use crate::limit::Limit;
use crate::score::{FrameScores, Metrics, Scores};
use crate::value::Value;

/// What a threshold is held against.
#[derive(Clone, Copy, Debug, PartialEq, Eq)]
pub enum Figure {
    MeanError,
    Psnr,
    Ssim,
    Cs,
    SsimDb,
    Scale,
    MsSsim,
    MsSsimDb,
    Hvs,
    HvsDb,
}

/// What an option is held against, and whether it is the least that is good; else it is the most.
pub struct Kind {
    /// The option that holds for frames, and the one that holds for the run's own figures.
    pub options: [&'static str; 2],
    pub figure: Figure,
    pub least: bool,
}

const fn kind(frame: &'static str, run: &'static str, figure: Figure, least: bool) -> Kind {
    Kind { options: [frame, run], figure, least }
}

pub const KINDS: [Kind; 10] = [
    kind("--max-error", "--run-max-error", Figure::MeanError, false),
    kind("--min-psnr", "--run-min-psnr", Figure::Psnr, true),
    kind("--min-ssim", "--run-min-ssim", Figure::Ssim, true),
    kind("--min-cs", "--run-min-cs", Figure::Cs, true),
    kind("--min-ssim-db", "--run-min-ssim-db", Figure::SsimDb, true),
    kind("--min-scale", "--run-min-scale", Figure::Scale, true),
    kind("--min-msssim", "--run-min-msssim", Figure::MsSsim, true),
    kind("--min-msssim-db", "--run-min-msssim-db", Figure::MsSsimDb, true),
    kind("--max-hvs", "--run-max-hvs", Figure::Hvs, false),
    kind("--min-hvs-db", "--run-min-hvs-db", Figure::HvsDb, true),
];

impl Kind {
    /// Whether the scores that it is held against are asked for, and under which name.
    pub fn needs(&self, metrics: &Metrics) -> (bool, &'static str) {
        match self.figure {
            Figure::MeanError | Figure::Psnr => (metrics.error, "error"),
            Figure::Ssim | Figure::Cs | Figure::SsimDb => (metrics.ssim, "ssim"),
            Figure::Scale => (metrics.scales, "scales"),
            Figure::MsSsim | Figure::MsSsimDb => (metrics.msssim, "msssim"),
            Figure::Hvs | Figure::HvsDb => (metrics.hvs, "hvs"),
        }
    }
}

#[derive(Clone, Copy)]
pub struct Threshold {
    pub kind: &'static Kind,
    /// Whether it is held against the run's own figures, and not against each frame's.
    pub run: bool,
    /// The one plane that it is about, or the combination.
    pub plane: Option<&'static str>,
    pub limit: Limit,
}

impl Threshold {
    pub fn option(&self) -> &'static str {
        self.kind.options[usize::from(self.run)]
    }

    pub fn show(&self) -> String {
        let plane = self.plane.map_or(String::new(), |plane| format!("{}=", plane));
        format!("{} {}{}", self.option(), plane, self.limit.show())
    }

    /// Whether it is about a plane that is not among the first so many: it would pass whatever comes.
    pub fn is_never_held(&self, planes: usize) -> bool {
        let there = |plane| plane == COMBINED || PLANES[..planes].contains(&plane);
        self.plane.map_or(false, |plane| !there(plane))
    }

    /// Without a plane's name it holds for each and for their combination.
    fn holds_for(&self, plane: &str) -> bool {
        self.plane.map_or(true, |own| own == plane)
    }
}

/// A threshold that a figure of a frame or of the run does not meet. A figure that is not there meets none.
#[derive(Debug, PartialEq)]
pub struct Broken {
    pub option: &'static str,
    pub limit: Limit,
    /// None for the run.
    pub frame: Option<u64>,
    pub plane: &'static str,
    pub field: &'static str,
    pub value: Value,
}

impl Broken {
    pub fn show(&self) -> String {
        let place = self.frame.map_or("the run".to_string(), |frame| format!("frame {}", frame));
        let (field, limit) = match self.field {
            // people are told decibels
            PSNR => ("psnr", self.limit.show_decibels()),
            field => (field, self.limit.show()),
        };
        let Broken { plane, option, value, .. } = self;
        format!("{}, plane {}: {} is {}, which breaks {} {}", place, plane, field, value.said(), option, limit)
    }
}

/// Which thresholds a frame breaks, or the run where there is no frame, in its planes or in their combination.
pub fn broken(thresholds: &[Threshold], frame: Option<u64>, scores: &FrameScores) -> Vec<Broken> {
    let mut list = Vec::new();
    for (plane, scores) in scores.named() {
        let held = thresholds.iter().filter(|held| held.run == frame.is_none() && held.holds_for(plane));
        for threshold in held {
            for (field, value) in figures(threshold.kind.figure, scores) {
                if !met(threshold, value) {
                    let (option, limit) = (threshold.option(), threshold.limit);
                    list.push(Broken { option, limit, frame, plane, field, value });
                }
            }
        }
    }
    list
}

/// Written so that a figure passes by being shown good: anything that does not compare fails.
fn met(threshold: &Threshold, value: Value) -> bool {
    match value {
        Value::Psnr(told) if threshold.kind.least => threshold.limit.is_met(told),
        Value::Double(value) if threshold.kind.least => value >= threshold.limit.number,
        Value::Double(value) => value <= threshold.limit.number,
        _ => false,
    }
}

/// The field of PSNR that limits are held against.
const PSNR: &str = "psnr_hundredths";

const SCALES: [&str; 5] = ["scale1_ssim", "scale2_ssim", "scale3_ssim", "scale4_ssim", "scale5_ssim"];

/// The figures of a kind, by the names that reports give them. Perfect decibels meet every limit. PSNR is the library's: that by the host's logarithm
/// is held against nothing.
pub fn figures(figure: Figure, scores: &Scores) -> Vec<(&'static str, Value)> {
    let one = |field, value: Option<f64>| vec![(field, Value::double(value))];
    let decibels = |field, decibels: Option<Decibels>| one(field, decibels.map(Decibels::held));
    match figure {
        Figure::MeanError => one("mse", scores.error.map(|record| mean_error(&record))),
        Figure::Psnr => vec![(PSNR, Value::psnr(scores.psnr))],
        Figure::Ssim => one("ssim", scores.ssim.map(|pair| pair.ssim)),
        Figure::Cs => one("cs", scores.ssim.map(|pair| pair.cs)),
        Figure::SsimDb => decibels("ssim_db", scores.ssim_db),
        Figure::Scale => {
            let of = |scale: usize| Value::double(scores.scales.map(|pairs| pairs[scale].ssim));
            SCALES.iter().enumerate().map(|(scale, name)| (*name, of(scale))).collect()
        }
        Figure::MsSsim => one("msssim", scores.msssim),
        Figure::MsSsimDb => decibels("msssim_db", scores.msssim_db),
        Figure::Hvs => one("hvs", scores.hvs),
        Figure::HvsDb => decibels("hvs_db", scores.hvs_db),
    }
}

#[cfg(test)]
mod tests {
    use super::*;
    use fuavelino::Decibels as Psnr;

    fn threshold(option: &str, limit: f64) -> Threshold {
        let kind = KINDS.iter().find(|kind| kind.options[0] == option).unwrap();
        Threshold { kind, run: false, plane: None, limit: written(limit) }
    }

    /// A limit as one that was written.
    fn written(limit: f64) -> Limit {
        Limit::read(&format!("{:?}", limit)).unwrap().1
    }

    #[test]
    fn equal_is_met_and_the_next_number_is_not() {
        let up = |x: f64| f64::from_bits(x.to_bits() + 1);
        let down = |x: f64| f64::from_bits(x.to_bits() - 1);
        for limit in [0.5, 1.0, 40.0] {
            assert!(met(&threshold("--min-ssim", limit), Value::Double(limit)));
            assert!(met(&threshold("--min-ssim", limit), Value::Double(up(limit))));
            assert!(!met(&threshold("--min-ssim", limit), Value::Double(down(limit))));
            assert!(met(&threshold("--max-hvs", limit), Value::Double(limit)));
            assert!(met(&threshold("--max-hvs", limit), Value::Double(down(limit))));
            assert!(!met(&threshold("--max-hvs", limit), Value::Double(up(limit))));
        }
    }

    /// By the library's hundredths, whatever the host's logarithm gives, or does not give.
    #[test]
    fn psnr_is_judged_by_its_hundredths() {
        let told = |psnr, psnr_db| Scores { psnr: Some(psnr), psnr_db, ..Scores::default() };
        let held = |limit: f64, combined: Scores| {
            let scores = FrameScores { planes: vec![], combined };
            broken(&[threshold("--min-psnr", limit)], Some(4), &scores)
                .iter()
                .map(Broken::show)
                .collect::<Vec<String>>()
        };
        let some = |told: u32| Psnr::Hundredths(told);
        for psnr_db in [
            None,
            Some(Decibels::Of(0.0)),
            Some(Decibels::Of(1e9)),
            Some(Decibels::Of(f64::NAN)),
            Some(Decibels::Perfect),
        ] {
            assert_eq!(held(38.92, told(some(3_892), psnr_db)), [""; 0]);
            let message = "frame 4, plane combined: psnr is 38.91, which breaks --min-psnr 38.92";
            assert_eq!(held(38.92, told(some(3_891), psnr_db)), [message]);
            let message = "frame 4, plane combined: psnr is 38.92, which breaks --min-psnr 38.921 (taken up to 38.93)";
            assert_eq!(held(38.921, told(some(3_892), psnr_db)), [message]);
            assert_eq!(held(1e300, told(Psnr::Identical, psnr_db)), [""; 0]);
            assert_eq!(held(1e300, told(some(20_469), psnr_db)).len(), 1);
        }
        // and where it is not there, the host's does not stand in for it
        let none = Scores { psnr_db: Some(Decibels::Perfect), ..Scores::default() };
        assert_eq!(held(-1.0, none), ["frame 4, plane combined: psnr is not given, which breaks --min-psnr -1.0"]);
    }

    #[test]
    fn what_is_not_a_number_or_not_there_meets_nothing() {
        for kind in &KINDS {
            for limit in [-1e300, 0.0, 1e300] {
                let threshold = Threshold { kind, run: false, plane: None, limit: written(limit) };
                assert!(!met(&threshold, Value::Double(f64::NAN)));
                assert!(!met(&threshold, Value::None));
            }
            let mut nothing = Threshold { kind, run: false, plane: None, limit: written(0.0) };
            nothing.limit.number = f64::NAN;
            assert!(!met(&nothing, Value::Double(0.0)) && !met(&nothing, Value::Double(1.0)));
        }
        // nor what is of another kind
        assert!(!met(&threshold("--max-error", 1e300), Value::Psnr(Psnr::Hundredths(0))));
        assert!(!met(&threshold("--min-ssim", 0.0), Value::Whole(1)));
    }

    #[test]
    fn a_score_that_is_missing_breaks_its_threshold() {
        let nothing = FrameScores { planes: vec![Scores::default()], combined: Scores::default() };
        for kind in &KINDS {
            for frame in [Some(0), None] {
                let threshold = Threshold { kind, run: frame.is_none(), plane: None, limit: written(0.0) };
                assert!(!broken(&[threshold], frame, &nothing).is_empty());
                // one of the run is not held against frames, nor the other way round
                assert!(broken(&[Threshold { run: frame.is_some(), ..threshold }], frame, &nothing).is_empty());
            }
        }
    }

    #[test]
    fn a_plane_that_is_named_is_judged_alone() {
        let bad = |hvs| Scores { hvs: Some(hvs), ..Scores::default() };
        let scores = FrameScores { planes: vec![bad(3.0), bad(2.0), bad(4.0)], combined: bad(3.5) };
        let planes = |plane, limit| -> Vec<&str> {
            let held = Threshold { plane, ..threshold("--max-hvs", limit) };
            broken(&[held], Some(7), &scores).iter().map(|one| one.plane).collect()
        };
        assert_eq!(planes(None, 2.5), ["y", "v", "combined"]);
        assert_eq!(planes(Some("u"), 1.5), ["u"]);
        assert_eq!(planes(Some("combined"), 3.0), ["combined"]);
        assert!(planes(Some("combined"), 3.5).is_empty() && planes(Some("v"), 4.0).is_empty());
    }

    /// No option passes over the combination.
    #[test]
    fn without_a_name_the_combination_is_judged_too() {
        let alone = FrameScores { planes: vec![], combined: Scores::default() };
        for kind in &KINDS {
            let held = Threshold { kind, run: false, plane: None, limit: written(0.0) };
            let list = broken(&[held], Some(0), &alone);
            assert!(!list.is_empty() && list.iter().all(|one| one.plane == COMBINED), "{}", held.option());
        }
    }
}
