"""What `bench/fetch` is made of: source packages of the distribution, how programs are built, and the compilations that this takes."""
