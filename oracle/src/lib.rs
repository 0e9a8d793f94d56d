//! The Rust functions of p3-field 0.8.0, text unchanged, over residues: what the proved code is compared with.
//!
//! `upstream/` holds the text, `scaffold/` what stands around it, and `build.rs` puts the two together.

pub mod ring {
    include!(concat!(env!("OUT_DIR"), "/ring.rs"));
}
pub mod extension {
    include!(concat!(env!("OUT_DIR"), "/extension.rs"));
}
pub mod binomial {
    include!(concat!(env!("OUT_DIR"), "/binomial.rs"));
}
pub mod trinomial {
    include!(concat!(env!("OUT_DIR"), "/trinomial.rs"));
}
pub mod calls;
pub mod residue;
pub mod samples;
pub mod systems;

pub use ring::field_to_array;
