pub use derives::Rand;
