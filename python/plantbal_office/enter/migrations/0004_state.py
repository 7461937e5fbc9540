"""What is known of a workbook that was dropped: whether it can be booked, and what came with it."""

from django.db import migrations, models


class Migration(migrations.Migration):
    dependencies = [("enter", "0003_cleared")]

    operations = [
        migrations.AddField(
            model_name="drop",
            name="batch",
            field=models.UUIDField(blank=True, null=True),
        ),
        migrations.AddField(
            model_name="drop",
            name="state",
            field=models.CharField(
                choices=[
                    ("new", "new"),
                    ("asked", "asked"),
                    ("ready", "ready"),
                    ("rejected", "rejected"),
                    ("booked", "booked"),
                ],
                default="new",
                max_length=12,
            ),
        ),
        migrations.AddField(
            model_name="drop",
            name="faults",
            field=models.PositiveIntegerField(default=0),
        ),
        migrations.AddField(
            model_name="drop",
            name="booked",
            field=models.DateTimeField(blank=True, null=True),
        ),
    ]
