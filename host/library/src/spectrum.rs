//! Fourier sums that are taken while a study runs.

use crate::maths;
use crate::study::{Field, Study};
use std::f64::consts::PI;
use std::ops::{Add, Div, Mul, Sub};

/// A complex number.
#[derive(Debug, Clone, Copy, PartialEq, Default)]
pub struct Complex {
    pub re: f64,
    pub im: f64,
}

impl Complex {
    pub const fn new(re: f64, im: f64) -> Self {
        Self { re, im }
    }

    /// exp(i angle)
    pub fn turn(angle: f64) -> Self {
        let (im, re) = maths::sin_cos(angle);
        Self { re, im }
    }

    pub fn norm(self) -> f64 {
        maths::hypot(self.re, self.im)
    }

    /// In radians, from -π to π.
    pub fn angle(self) -> f64 {
        maths::atan2(self.im, self.re)
    }

    pub fn scale(self, by: f64) -> Self {
        Self::new(self.re * by, self.im * by)
    }
}

impl Add for Complex {
    type Output = Self;
    fn add(self, other: Self) -> Self {
        Self::new(self.re + other.re, self.im + other.im)
    }
}

impl Sub for Complex {
    type Output = Self;
    fn sub(self, other: Self) -> Self {
        Self::new(self.re - other.re, self.im - other.im)
    }
}

impl Mul for Complex {
    type Output = Self;
    fn mul(self, other: Self) -> Self {
        Self::new(self.re * other.re - self.im * other.im, self.re * other.im + self.im * other.re)
    }
}

impl Div for Complex {
    type Output = Self;
    fn div(self, other: Self) -> Self {
        let square = other.re * other.re + other.im * other.im;
        let (re, im) = (self.re * other.re + self.im * other.im, self.im * other.re - self.re * other.im);
        Self::new(re / square, im / square)
    }
}

/// How many samples the phases are carried on by products before they are taken anew.
const ANEW: u64 = 256;

/// The sum of ex, averaged over a plane, times exp(-2πi f t) and the time between samples, at each of some frequencies.
#[derive(Debug, Clone)]
pub struct PlaneSpectrum {
    k: usize,
    frequencies: Vec<f64>,
    between: f64,
    phases: Vec<Complex>,
    turns: Vec<Complex>,
    sums: Vec<Complex>,
    taken: u64,
}

impl PlaneSpectrum {
    /// Of plane k; `between` is the time in s from one sample to the next.
    pub fn new(k: usize, frequencies: &[f64], between: f64) -> Self {
        let turn = |&f: &f64| Complex::turn(-2.0 * PI * f * between);
        Self {
            k,
            frequencies: frequencies.to_vec(),
            between,
            phases: vec![Complex::new(1.0, 0.0); frequencies.len()],
            turns: frequencies.iter().map(turn).collect(),
            sums: vec![Complex::default(); frequencies.len()],
            taken: 0,
        }
    }

    /// Takes a sample of the study as it stands. The first one stands for the time 0.
    pub fn take(&mut self, study: &Study) {
        let plane = study.plane(Field::Electric, 0, self.k);
        self.add(plane.iter().sum::<f64>() / plane.len().max(1) as f64);
    }

    /// Takes a sample that was had another way.
    pub fn add(&mut self, value: f64) {
        if self.taken % ANEW == 0 {
            let time = self.taken as f64 * self.between;
            self.phases = self.frequencies.iter().map(|f| Complex::turn(-2.0 * PI * f * time)).collect();
        }
        let weight = value * self.between;
        for ((sum, phase), turn) in self.sums.iter_mut().zip(&mut self.phases).zip(&self.turns) {
            *sum = *sum + phase.scale(weight);
            *phase = *phase * *turn;
        }
        self.taken += 1;
    }

    /// The sums so far, one for each frequency.
    pub fn sums(&self) -> &[Complex] {
        &self.sums
    }
}
