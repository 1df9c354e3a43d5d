set seed 7
{ x -5 hue 20 sat 0.8 } chain
rule chain maxdepth 14 {
  { x 1 rz 12 ry 9 s 0.97 hue 12 } chain
  box
  { y 1.4 s 0.8 } sphere
}
