name: truth
version: 1.0
description: The constant T

main {
  article: "truth.art"
}
