//! Where the original was found. This is the last of the tests by its name, so that `cargo test` ends with its
//! line: where the original was not there, every comparison with it has passed without comparing.

fn main() {
    let folder = env!("ORIGINAL");
    if cfg!(original) {
        println!("compared with the original at {folder}");
    } else {
        println!(
            "NOT COMPARED: the original was not found at {folder} (PHYZ_EM_SRC names its folder)"
        );
    }
}
