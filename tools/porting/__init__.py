"""What tools/port is made of: how an agent of Soar 9.6 is read, flattened and checked."""
