pub use derives::Derivative;
