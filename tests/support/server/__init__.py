"""What tests of server/ share; front serves bench/bench-behind-nginx too."""
