//! exp, sin, cos and their like, with the same bits on every machine: those of the crate `libm`, which are Rust alone and so nothing but IEEE sums and products.
//! The system's library chooses its own by the processor, with fused products or without, and their last bits differ from one to the other. Every number of a
//! curve, a layer's table or a warning that needs such a function takes it from here; square roots are IEEE's, and of powers by whole numbers there are squares alone, which are one product.
//!
//! They are as near to the true values as the system's, to about one unit in the last place, for every argument: subnormal and infinite ones among them.

/// The exponential function.
pub fn exp(x: f64) -> f64 {
    libm::exp(x)
}

/// The natural logarithm.
pub fn ln(x: f64) -> f64 {
    libm::log(x)
}

/// The logarithm to the base 10.
pub fn log10(x: f64) -> f64 {
    libm::log10(x)
}

/// x to the power y.
pub fn powf(x: f64, y: f64) -> f64 {
    libm::pow(x, y)
}

/// Of an angle in radians.
pub fn sin(angle: f64) -> f64 {
    libm::sin(angle)
}

/// Of an angle in radians.
pub fn cos(angle: f64) -> f64 {
    libm::cos(angle)
}

/// Both of an angle in radians, sine first.
pub fn sin_cos(angle: f64) -> (f64, f64) {
    libm::sincos(angle)
}

/// The angle with a sine, from -π/2 to π/2.
pub fn asin(sine: f64) -> f64 {
    libm::asin(sine)
}

/// The angle of the point (x, y), from -π to π. The arguments stand as in `f64::atan2`: y first.
pub fn atan2(y: f64, x: f64) -> f64 {
    libm::atan2(y, x)
}

/// √(x² + y²), which overflows only where it is too large itself.
pub fn hypot(x: f64, y: f64) -> f64 {
    libm::hypot(x, y)
}
