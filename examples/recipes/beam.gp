# How the beam of ../first bends, as a picture: gnuplot ../recipes/beam.gp
set terminal svg size 480, 320 background 'white'
set output 'beam.svg'
set xlabel 'width (mm)'
set ylabel 'deflection (mm)'
plot 'beam.dat' using "width":"deflection" with linespoints notitle
