# Answers TPC-H's Q6, Q1 or Q1 with a sum of three factors (Q6, Q1, Q1-tax) by data.table, over the CSV that lineitem.c writes, with as many
# threads as data.table takes by itself. Prints a line for each group, or one, with the keys and the answers; and to standard error the
# milliseconds of the answer alone, the least of five, and the number of threads.
# usage: Rscript lineitem.R CSV QUERY
suppressPackageStartupMessages(library(data.table))
words <- commandArgs(TRUE)
t <- fread(words[1])
t[, shipdate := as.IDate(shipdate)]
t[, quantity := as.numeric(quantity)]
from <- as.IDate("1994-01-01")
until <- as.IDate("1995-01-01")
shipped <- as.IDate("1998-09-02")
# Discounts are compared with numbers between them, so that how a decimal was rounded does not matter.
answers <- list(
  Q6 = function() t[
    shipdate >= from & shipdate < until & discount > 0.045 & discount < 0.075 & quantity < 24,
    .(sum(extendedprice * discount))
  ],
  Q1 = function() t[
    shipdate <= shipped,
    .(sum(quantity), sum(extendedprice), sum(extendedprice * (1 - discount)), mean(quantity), .N),
    keyby = .(returnflag, linestatus)
  ],
  `Q1-tax` = function() t[
    shipdate <= shipped,
    .(
      sum(quantity), sum(extendedprice), sum(extendedprice * (1 - discount)),
      sum(extendedprice * (1 - discount) * (1 + tax)), mean(quantity), .N
    ),
    keyby = .(returnflag, linestatus)
  ]
)
answer <- answers[[words[2]]]
least <- min(sapply(1:5, function(run) system.time(answer())[["elapsed"]]))
for (row in split(answer(), seq_len(nrow(answer())))) {
  cat(sapply(row, function(field) if (is.numeric(field)) formatC(field, digits = 15, format = "g") else field), "\n")
}
cat(least * 1000, " ", getDTthreads(), "\n", sep = "", file = stderr())
