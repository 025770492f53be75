"""What runs the tests, and what they share: what is built, what the machine has, servers, programs."""
