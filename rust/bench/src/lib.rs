//! The benchmark's table: what each exported call takes in time, instructions and memory, beside the Rust version and OpenSSL.

pub mod case;
pub mod heap;
pub mod instructions;
pub mod measure;
pub mod openssl;
pub mod plain;
pub mod recorder;
pub mod shapes;
pub mod stack;
pub mod table;
