# Counts the items of a report by category, as `mpw check` sums up its markers:
# klayout -b -zz -r report.rb -rd report=OUT.lyrdb
database = RBA::ReportDatabase.new('report')
database.load($report)
counts = []
database.each_category { |category| counts << "#{category.name} #{category.num_items}" }
puts ["#{database.num_items} markers", *counts].join(', ')
