# How much faster more workers are. speedup.sh gives the terminal, machine, and data: of each of so many blocks a name, and then lines of
# workers and speed-up.
array colours = ["#0072b2", "#d55e00", "#009e73", "#cc79a7", "#e69f00"]
set title "Speed-up by workers" offset 0, 0.9
set label machine at graph 0.5, 1.05 center noenhanced font ",9"
set tmargin 4.5
set xlabel "Workers"
set ylabel "Speed-up (time of serial / time of run)"
set xrange [0.8 : 4.2]
set yrange [0 : 4.4 < *]
set xtics 1 out nomirror
set ytics 1 out nomirror
set grid ytics linecolor rgb "#dddddd"
set border 3
set key top left Left reverse samplen 3 noenhanced
plot x with lines dashtype 2 linewidth 1.5 linecolor rgb "#888888" title "as many times as workers", \
  for [i = 0 : blocks - 1] data index i using 1:2 with linespoints pointtype 7 pointsize 0.7 linewidth 2 \
    linecolor rgb colours[i % 5 + 1] title columnheader(1)
