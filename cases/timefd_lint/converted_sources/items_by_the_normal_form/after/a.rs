let a = format_description!(version = 3, "[day][optional [ [hour padding:none] ]]");
