"""Shows again and again how the methods and turns of a served image do."""
