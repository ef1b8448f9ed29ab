# What commands of a shell print.

group='commands'
for commands in tests/commands/*; do
  count "$commands" does_commands "$commands"
done
