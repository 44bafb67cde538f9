//! Test inputs from a seed: the same seed always gives the same inputs.

mod builder;
mod damage;
mod fault;
mod image;
mod machine;
mod program;
mod rng;
mod window;

pub use damage::{damage, damage_as, Damage, DamageKind};
pub use image::{code_length, fit_image, image};
pub use machine::{
    any_fields, defined_halfword, edge_value, executable_memory, halfword, instruction, machine,
    memory, start, undefined_halfword,
};
pub use program::{fit_program, mutate, random_program, refused_program};
pub use rng::Rng;
pub use window::{any_window, bad_window, window};
