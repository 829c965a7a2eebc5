name: equals-truth
version: 1.0
description: What holds equals T, for a constant "T" that holds

main {
  article: "equals-truth.art"
}
