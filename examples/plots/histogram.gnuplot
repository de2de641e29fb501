# How often pi.ped estimates what. histogram.sh gives the terminal, data, whose lines are a seed and its estimate, and seeds, their number.
width = 0.004
points = 10000
# The hits of so many points have a binomial distribution of probability pi / 4, and the estimate is 4 / points times the hits.
deviation = 4 * sqrt(pi / 4 * (1 - pi / 4) / points)
bin(x) = width * (floor(x / width + 1e-9) + 0.5)
expected(x) = seeds * width * exp(-((x - pi) / deviation) ** 2 / 2) / (deviation * sqrt(2 * pi))

set title sprintf("Pi by %d random points, estimated by %d seeds", points, seeds)
set xlabel "Estimate of pi (one run of pi.ped)"
set ylabel sprintf("Seeds in a bin %.3f wide", width)
set xrange [pi - 4.2 * deviation : pi + 4.2 * deviation]
set yrange [0 : expected(pi) * 1.3 < *]
set xtics 0.02 out nomirror format "%.2f"
set ytics out nomirror
set border 3
set key top right Left reverse samplen 2
set style fill solid 1
set boxwidth width * 0.9
set samples 300
plot data using (bin($2)):(1) smooth frequency with boxes linecolor rgb "#56b4e9" title "seeds", \
  expected(x) with lines linewidth 2 linecolor rgb "#d55e00" title "expected of fair draws"
