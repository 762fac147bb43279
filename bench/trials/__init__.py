"""The parts of `bench/hostile`: trials of the program, each with what it must answer."""
