//! What the wave's source gives at a time.

use crate::maths;
use std::f64::consts::PI;

/// A source of the incident wave. Frequencies in Hz, times in s; the amplitude is that of the sample which a step takes.
#[derive(Debug, Clone, PartialEq)]
pub enum Source {
    /// amplitude exp(-((t - delay) / width)²)
    Gaussian { amplitude: f64, width: f64, delay: f64 },
    /// amplitude exp(-((t - delay) / width)²) sin(2π frequency (t - delay))
    Modulated { amplitude: f64, width: f64, delay: f64, frequency: f64 },
    /// amplitude sin(2π frequency t), from nothing to its whole over the ramp by a half cosine
    Continuous { amplitude: f64, frequency: f64, ramp: f64 },
    /// a sample for each step, and 0 after the last
    Table { samples: Vec<f64> },
}

impl Source {
    /// What it gives at the time t, which is the end of the given step, counted from 0.
    pub fn at(&self, t: f64, step: usize) -> f64 {
        let bell = |width: f64, delay: f64| maths::exp(-((t - delay) / width).powi(2));
        match self {
            Self::Gaussian { amplitude, width, delay } => amplitude * bell(*width, *delay),
            Self::Modulated { amplitude, width, delay, frequency } => {
                amplitude * bell(*width, *delay) * maths::sin(2.0 * PI * frequency * (t - delay))
            }
            Self::Continuous { amplitude, frequency, ramp } => amplitude * rise(t, *ramp) * maths::sin(2.0 * PI * frequency * t),
            Self::Table { samples } => samples.get(step).copied().unwrap_or(0.0),
        }
    }

    /// The samples of the steps that follow the time t, without end, the first of them the step with that number. The time is added up as the engine does.
    pub fn samples(&self, mut t: f64, dt: f64, first: usize) -> impl Iterator<Item = f64> + '_ {
        (0..).map(move |step: usize| {
            t += dt;
            self.at(t, first.saturating_add(step))
        })
    }

    /// The highest frequency with a part of the spectrum worth counting (1e-16 of its largest); None where that cannot be told.
    pub fn highest_frequency(&self) -> Option<f64> {
        let spread = |width: f64| maths::ln(1e16).sqrt() / (PI * width);
        match self {
            Self::Gaussian { width, .. } => Some(spread(*width)),
            Self::Modulated { width, frequency, .. } => Some(frequency + spread(*width)),
            Self::Continuous { .. } | Self::Table { .. } => None,
        }
    }
}

/// From 0 to 1 over the ramp.
fn rise(t: f64, ramp: f64) -> f64 {
    if t >= ramp {
        1.0
    } else if t <= 0.0 {
        0.0
    } else {
        0.5 - 0.5 * maths::cos(PI * t / ramp)
    }
}
