"""Programs of students, run within walls."""
