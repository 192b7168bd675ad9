//! What stands after each moment of a replay: tasks, queues, words, and who owes which wake.

pub mod ending;
pub mod queues;
pub mod task;
pub mod world;
