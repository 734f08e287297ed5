# Draws growth.svg from growth.dat, the lines that measure.sh prints: gnuplot growth.gp
set terminal svg size 960,420 font 'sans-serif,14' background '#ffffff'
set output 'growth.svg'
# The minimum elapsed time of each number of workers, and of the loop, which has one.
least(name, engine) = "< awk '$1 == \"".name."\" && $2 == \"".engine."\" && (!($3 in t) || $5 < t[$3]) { t[$3] = $5 } END { for (w in t) print w, t[w] }' growth.dat | sort -n"
loop(name) = system("awk '$1 == \"".name."\" && $2 == \"turn\" && (!t || $5 < t) { t = $5 } END { print t }' growth.dat") + 0
set logscale xy 2
set xrange [0.9:4.5]
set yrange [1:32]
set xtics (1, 2, 4)
set xlabel 'workers'
set grid ytics
set key bottom left
set multiplot layout 1,2
set title '10,000 classes in 40 parts: audit and check'
set ylabel 'seconds elapsed'
plot loop('audit') / x title 'the loop, shared out' dashtype 2 linecolor 'gray40', \
  least('audit', 'parallel') with linespoints pointtype 7 linecolor '#1f77b4' title 'GNU parallel', \
  least('audit', 'slurm') with linespoints pointtype 5 linecolor '#d95f02' title 'Slurm'
set title '200 streams of 100,000 records: totals'
unset ylabel
plot loop('streams') / x title 'the loop, shared out' dashtype 2 linecolor 'gray40', \
  least('streams', 'parallel') with linespoints pointtype 7 linecolor '#1f77b4' title 'GNU parallel', \
  least('streams', 'slurm') with linespoints pointtype 5 linecolor '#d95f02' title 'Slurm'
unset multiplot
