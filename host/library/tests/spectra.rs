//! Fourier sums and sources.

use cichowiej::{Complex, PlaneSpectrum, Source, write_whole};
use std::f64::consts::PI;
use std::fs;

/// The sum of a Gaussian is the closed form of its transform, also where few samples are taken.
#[test]
fn a_gaussians_transform() {
    let width = 1e-10;
    let frequencies = [0.0, 1e9, 3e9, 6e9];
    for stride in [1, 8, 64] {
        let between = stride as f64 * 1e-13;
        let mut spectrum = PlaneSpectrum::new(0, &frequencies, between);
        for i in 0..(12e-10 / between) as usize {
            let t = i as f64 * between - 6e-10;
            spectrum.add((-(t / width).powi(2)).exp());
        }
        for (&f, &found) in frequencies.iter().zip(spectrum.sums()) {
            let size = PI.sqrt() * width * (-(PI * f * width).powi(2)).exp();
            let wanted = Complex::turn(-2.0 * PI * f * 6e-10).scale(size);
            assert!((found - wanted).norm() < 1e-12 * PI.sqrt() * width, "stride {stride}, {f} Hz");
        }
    }
}

#[test]
fn sources_begin_and_end() {
    let continuous = Source::Continuous { amplitude: 2.0, frequency: 1e9, ramp: 1e-9 };
    assert_eq!(continuous.at(0.0, 0), 0.0);
    assert!((continuous.at(2.25e-9, 0) - 2.0).abs() < 1e-9);
    let table = Source::Table { samples: vec![1.0, 2.0] };
    assert_eq!(table.samples(0.0, 1.0, 1).take(3).collect::<Vec<f64>>(), [2.0, 0.0, 0.0]);
    assert_eq!(table.samples(0.0, 1.0, usize::MAX).nth(1), Some(0.0));
    // the time is added up as a step does
    let gaussian = Source::Gaussian { amplitude: 1.0, width: 1.0, delay: 0.0 };
    let t = 0.1 + 0.1 + 0.1;
    assert_eq!(gaussian.samples(0.0, 0.1, 0).nth(2), Some(gaussian.at(t, 2)));
}

#[test]
fn a_file_is_written_whole() {
    let folder = tempfile::tempdir().unwrap();
    let path = folder.path().join("curve.csv");
    write_whole(&path, b"old").unwrap();
    write_whole(&path, b"new").unwrap();
    assert_eq!(fs::read(&path).unwrap(), b"new");
    assert_eq!(fs::read_dir(folder.path()).unwrap().count(), 1);
    assert!(write_whole(&folder.path().join("nowhere/curve.csv"), b"x").is_err());
    assert!(write_whole(folder.path(), b"x").is_err());
}
