"""What tools/explain says, part by part: each module looks at one kind of end, and says only what is certain."""
