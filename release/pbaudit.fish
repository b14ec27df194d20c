# Completion of pbaudit in fish. It is made of the program's help.
# Whether the command is this one; without one, whether there is none yet.
function __pbaudit_command_is
    set -l words (commandline -opc)
    set -e words[1]
    for word in $words
        if not string match -q -- '-*' $word
            test "$word" = "$argv[1]"
            return
        end
    end
    test -z "$argv[1]"
end
complete -c pbaudit -f
complete -c pbaudit -n '__pbaudit_command_is' -s h -l help -d 'Print help'
complete -c pbaudit -n '__pbaudit_command_is' -s V -l version -d 'Print version'
complete -c pbaudit -n __pbaudit_command_is -a read -d 'Read an election and print how many voters and projects it has'
complete -c pbaudit -n __pbaudit_command_is -a groups -d 'Check whether a group of voters falls short, for an outcome without a certificate'
complete -c pbaudit -n __pbaudit_command_is -a prices -d 'Check whether the payments of a price certificate support the outcome'
complete -c pbaudit -n __pbaudit_command_is -a violation -d 'Check whether the outcome treats a group of voters worse than EJR allows'
complete -c pbaudit -n __pbaudit_command_is -a refutation -d 'Check a proof that no prices whatever support the outcome'
complete -c pbaudit -n __pbaudit_command_is -a both -d 'Check a price certificate and a violation certificate for one outcome'
complete -c pbaudit -n __pbaudit_command_is -a explain -d 'Check a certificate and print the figures of each condition or test'
complete -c pbaudit -n __pbaudit_command_is -a page -d 'Check a certificate and print a page in plain words, as HTML'
complete -c pbaudit -n __pbaudit_command_is -a margins -d 'Print what each project costs, is paid and could be offered, as CSV'
complete -c pbaudit -n __pbaudit_command_is -a tidy -d 'Print a price certificate in its canonical form'
complete -c pbaudit -n __pbaudit_command_is -a folder -d 'Audit the elections of a folder with their certificates'
complete -c pbaudit -n __pbaudit_command_is -a help -d 'Print this message or the help of the given subcommand(s)'
complete -c pbaudit -n '__pbaudit_command_is read' -F
complete -c pbaudit -n '__pbaudit_command_is read' -l json -d 'Print one JSON object with all that is found, for programs'
complete -c pbaudit -n '__pbaudit_command_is read' -s h -l help -d 'Print help'
complete -c pbaudit -n '__pbaudit_command_is groups' -F
complete -c pbaudit -n '__pbaudit_command_is groups' -l satisfaction -r -F -d 'Measure what voters got by \'cost\' or by \'count\'; by cost where none is named'
complete -c pbaudit -n '__pbaudit_command_is groups' -l outcome -r -F -d 'Take the funded projects from this file, not from the column \'selected\''
complete -c pbaudit -n '__pbaudit_command_is groups' -l json -d 'Print one JSON object with all that is found, for programs'
complete -c pbaudit -n '__pbaudit_command_is groups' -s h -l help -d 'Print help'
complete -c pbaudit -n '__pbaudit_command_is prices' -F
complete -c pbaudit -n '__pbaudit_command_is prices' -l stable -d 'Ask for the stable form: condition S5 in place of C5'
complete -c pbaudit -n '__pbaudit_command_is prices' -l no-exhaustive -d 'Leave out the condition Exhaustive'
complete -c pbaudit -n '__pbaudit_command_is prices' -l cover -d 'Add the condition Cover'
complete -c pbaudit -n '__pbaudit_command_is prices' -l outcome -r -F -d 'Take the funded projects from this file, not from the column \'selected\''
complete -c pbaudit -n '__pbaudit_command_is prices' -l json -d 'Print one JSON object with all that is found, for programs'
complete -c pbaudit -n '__pbaudit_command_is prices' -s h -l help -d 'Print help'
complete -c pbaudit -n '__pbaudit_command_is violation' -F
complete -c pbaudit -n '__pbaudit_command_is violation' -l outcome -r -F -d 'Take the funded projects from this file, not from the column \'selected\''
complete -c pbaudit -n '__pbaudit_command_is violation' -l json -d 'Print one JSON object with all that is found, for programs'
complete -c pbaudit -n '__pbaudit_command_is violation' -s h -l help -d 'Print help'
complete -c pbaudit -n '__pbaudit_command_is refutation' -F
complete -c pbaudit -n '__pbaudit_command_is refutation' -l stable -d 'Ask too whether the weights refute stable prices alone'
complete -c pbaudit -n '__pbaudit_command_is refutation' -l outcome -r -F -d 'Take the funded projects from this file, not from the column \'selected\''
complete -c pbaudit -n '__pbaudit_command_is refutation' -l json -d 'Print one JSON object with all that is found, for programs'
complete -c pbaudit -n '__pbaudit_command_is refutation' -s h -l help -d 'Print help'
complete -c pbaudit -n '__pbaudit_command_is both' -F
complete -c pbaudit -n '__pbaudit_command_is both' -l stable -d 'Ask for the stable form: condition S5 in place of C5'
complete -c pbaudit -n '__pbaudit_command_is both' -l no-exhaustive -d 'Leave out the condition Exhaustive'
complete -c pbaudit -n '__pbaudit_command_is both' -l cover -d 'Add the condition Cover'
complete -c pbaudit -n '__pbaudit_command_is both' -l outcome -r -F -d 'Take the funded projects from this file, not from the column \'selected\''
complete -c pbaudit -n '__pbaudit_command_is both' -l json -d 'Print one JSON object with all that is found, for programs'
complete -c pbaudit -n '__pbaudit_command_is both' -s h -l help -d 'Print help'
complete -c pbaudit -n '__pbaudit_command_is explain' -F
complete -c pbaudit -n '__pbaudit_command_is explain' -l groups -d 'Ask about groups that fall short, instead of a certificate'
complete -c pbaudit -n '__pbaudit_command_is explain' -l satisfaction -r -F -d 'Measure what voters got by \'cost\' or by \'count\'; by cost where none is named'
complete -c pbaudit -n '__pbaudit_command_is explain' -l stable -d 'Ask for the stable form: condition S5 in place of C5'
complete -c pbaudit -n '__pbaudit_command_is explain' -l no-exhaustive -d 'Leave out the condition Exhaustive'
complete -c pbaudit -n '__pbaudit_command_is explain' -l cover -d 'Add the condition Cover'
complete -c pbaudit -n '__pbaudit_command_is explain' -l outcome -r -F -d 'Take the funded projects from this file, not from the column \'selected\''
complete -c pbaudit -n '__pbaudit_command_is explain' -l json -d 'Print one JSON object with all that is found, for programs'
complete -c pbaudit -n '__pbaudit_command_is explain' -s h -l help -d 'Print help'
complete -c pbaudit -n '__pbaudit_command_is page' -F
complete -c pbaudit -n '__pbaudit_command_is page' -l groups -d 'Ask about groups that fall short, instead of a certificate'
complete -c pbaudit -n '__pbaudit_command_is page' -l satisfaction -r -F -d 'Measure what voters got by \'cost\' or by \'count\'; by cost where none is named'
complete -c pbaudit -n '__pbaudit_command_is page' -l stable -d 'Ask for the stable form: condition S5 in place of C5'
complete -c pbaudit -n '__pbaudit_command_is page' -l no-exhaustive -d 'Leave out the condition Exhaustive'
complete -c pbaudit -n '__pbaudit_command_is page' -l cover -d 'Add the condition Cover'
complete -c pbaudit -n '__pbaudit_command_is page' -l outcome -r -F -d 'Take the funded projects from this file, not from the column \'selected\''
complete -c pbaudit -n '__pbaudit_command_is page' -l language -r -f -a 'en pl de fr' -d 'Write the page in this language: en, pl, de or fr'
complete -c pbaudit -n '__pbaudit_command_is page' -s h -l help -d 'Print help'
complete -c pbaudit -n '__pbaudit_command_is margins' -F
complete -c pbaudit -n '__pbaudit_command_is margins' -l groups -d 'Ask about groups that fall short, instead of a certificate'
complete -c pbaudit -n '__pbaudit_command_is margins' -l satisfaction -r -F -d 'Measure what voters got by \'cost\' or by \'count\'; by cost where none is named'
complete -c pbaudit -n '__pbaudit_command_is margins' -l outcome -r -F -d 'Take the funded projects from this file, not from the column \'selected\''
complete -c pbaudit -n '__pbaudit_command_is margins' -s h -l help -d 'Print help'
complete -c pbaudit -n '__pbaudit_command_is tidy' -F
complete -c pbaudit -n '__pbaudit_command_is tidy' -s h -l help -d 'Print help'
complete -c pbaudit -n '__pbaudit_command_is folder' -f -a '(__fish_complete_directories)'
complete -c pbaudit -n '__pbaudit_command_is folder' -l stable -d 'Ask for the stable form: condition S5 in place of C5'
complete -c pbaudit -n '__pbaudit_command_is folder' -l no-exhaustive -d 'Leave out the condition Exhaustive'
complete -c pbaudit -n '__pbaudit_command_is folder' -l cover -d 'Add the condition Cover'
complete -c pbaudit -n '__pbaudit_command_is folder' -l json -d 'Print a JSON object for each election and one for the total, for programs'
complete -c pbaudit -n '__pbaudit_command_is folder' -s h -l help -d 'Print help'
complete -c pbaudit -n '__pbaudit_command_is help' -f -a 'read groups prices violation refutation both explain page margins tidy folder help'
