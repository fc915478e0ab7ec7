records <- data.frame(
  id = c("007", "NA", "C-6"), calendar = c("julian", "gregorian", "french"),
  date = c("1700-02-29", "1700-02-29", "2-4-15")
)
register <- tempfile(fileext = ".csv")
write.csv(records, register, row.names = FALSE, fileEncoding = "UTF-8")
stopifnot(system2("./register", c("--to", "gregorian", register)) == 0)
table <- read.csv(paste0(register, ".out.csv"), colClasses = "character", na.strings = NULL, fileEncoding = "UTF-8")
dates <- table[table$refusal == "", ]
dates$rd <- as.integer(dates$rd)
refused <- table[table$refusal != "", ]
print(dates[c("id", "rd", "weekday", "gregorian")], row.names = FALSE)
print(refused[c("id", "refusal")], row.names = FALSE)
