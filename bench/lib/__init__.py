"""Parts of bench/bench; load serves bench/bench-behind-nginx too."""
