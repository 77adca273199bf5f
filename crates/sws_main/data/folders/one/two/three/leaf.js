let leaf;
