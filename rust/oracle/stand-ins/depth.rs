// Stand-in for utils/depth.rs. Nothing that the analysis runs reads it.
