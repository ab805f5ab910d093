# Instructions by kind of event, over the captured sessions.
set terminal svg size 820,400 noenhanced font 'sans-serif,13' background 'white'
set datafile separator "\t"
set title 'Instructions by the event, over the captured sessions'
set style data histograms
set style histogram clustered gap 1
set style fill solid
set boxwidth 0.9
set yrange [0:*]
set grid ytics
set xtics nomirror
set ytics nomirror
set key outside top right horizontal
plot 'build/figures/captured.tsv' using ($3/$2):xtic(1) title 'proved' linecolor rgb '#1b6ca8', \
     '' using ($4/$2) title 'second' linecolor rgb '#e0a030', \
     '' using ($0-0.167):($3/$2):(sprintf('%.0f',$3/$2)) with labels offset 0,0.6 notitle, \
     '' using ($0+0.167):($4/$2):(sprintf('%.0f',$4/$2)) with labels offset 0,0.6 notitle
