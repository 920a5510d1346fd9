Bat
cat
dog