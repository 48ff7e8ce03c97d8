"""Programs in simulated time. Each run uses a separate machine, in which time passes when all processes wait."""
