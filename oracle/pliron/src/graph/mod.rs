pub mod walkers;
